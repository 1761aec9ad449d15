# A wave defence in three files: this one, waves/field.verse and waves/enemies.verse. Look at: what marches and
# what shoots goes on behind the fight and is cancelled with it, and each tower's `defer` says so; a tower is
# bought whole or not at all. `--in` has the size of each wave, and `--heap` shows the store at the end.
using { /Verse.org/Simulation }

# Before a wave: of the towers that the gold is enough for the dearest.
Shop(B:base):void =
    if (B.Buy[tower{Name := "ballista", Hurts := 14, Wait := 3}, 80]):
        Print("  a ballista is bought, {B.Gold} gold left")
    else if (B.Buy[tower{Name := "archer", Hurts := 5, Wait := 1}, 40]):
        Print("  an archer is hired, {B.Gold} gold left")
    else:
        Print("  nothing to be had for {B.Gold} gold")

# A tower shoots at the enemy that is nearest, for as long as it is let.
Guard(T:tower, W:wave)<suspends>:void =
    var Shots:int = 0
    defer { Print("  the {T.Name} rests after {Shots} shots") }
    loop:
        for (I := 1..T.Wait) { Sleep(1.0) }
        if (E := W.Nearest[]):
            set Shots += 1
            E.Hurt(T.Hurts)
            if (not E.Stands[]) { W.Gone.Signal() }

# All towers from one on, side by side.
Guards(B:base, From:int, W:wave)<suspends>:void =
    if (T := B.Towers[From]):
        sync:
            Guard(T, W)
            Guards(B, From + 1, W)

# Pays for each enemy that has fallen, and is done when none is left. Two signals of one moment wake it once, so
# it looks at all enemies each time.
Collect(B:base, W:wave)<suspends>:int =
    var Gold:int = 0
    loop:
        if (W.IsOver[]) { break }
        W.Gone.Await()
        for (E : W.Enemies, not E.Stands[], not E.Paid?):
            set E.Paid = true
            set Gold += E.Worth
            Print("  the {E.Name} has fallen")
    set B.Gold += Gold
    Gold

# One wave: how it ended, as a word.
Fight(B:base, W:wave)<suspends>:string =
    branch:
        Guards(B, 0, W)
    branch:
        March(B, 0, W)
    race:
        block:
            Gold := Collect(B, W)
            "won, {Gold} gold"
        block:
            B.Lost.Await()
            "lost"
        block:
            Sleep(30.0)
            "over, night falls"

Main(Sizes:[]int)<suspends>:void =
    B := base{}
    for (I -> Size : Sizes):
        if (B.Stands[]):
            Shop(B)
            Print("wave {I + 1}: {Size} enemies")
            Word := Fight(B, MakeWave(I, Size))
            Print("wave {I + 1} is {Word}")
            Sleep(2.0)
    Print("{B.Health} health, {B.Gold} gold, {B.Towers.Length} towers")
