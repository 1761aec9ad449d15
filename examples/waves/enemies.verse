# The enemies of the wave defence: of which kinds a wave is, and how they march.

kind := enum{goblin, wolf, troll}

# The later the wave, the worse: a troll is the last of each wave from the third on, and every third is a wolf.
KindOf(Number:int, Place:int, Size:int)<computes>:kind =
    if (Number >= 2, Place = Size):
        kind.troll
    else if (Mod[Place, 3] = 0):
        kind.wolf
    else:
        kind.goblin

MakeEnemy(K:kind)<transacts>:enemy =
    case (K):
        kind.goblin => enemy{Name := "goblin", Halves := 2, Strength := 1, Worth := 10, Health := 8}
        kind.wolf => enemy{Name := "wolf", Halves := 1, Strength := 2, Worth := 15, Health := 5}
        kind.troll => enemy{Name := "troll", Halves := 3, Strength := 10, Worth := 50, Health := 80}

MakeWave(Number:int, Size:int)<transacts>:wave =
    wave{Enemies := for (Place := 1..Size) { MakeEnemy(KindOf(Number, Place, Size)) }}

# One enemy: a step each so many halves of a second, until it has fallen or is there.
Walk(B:base, E:enemy, W:wave)<suspends>:void =
    loop:
        for (I := 1..E.Halves) { Sleep(0.5) }
        if (not E.Stands[]) { return }
        set E.Distance -= 1
        if (E.Distance = 0) { break }
    Print("  the {E.Name} is in the base")
    B.Hurt(E.Strength)
    set E.Health = 0
    set E.Paid = true
    if (not B.Stands[]) { B.Lost.Signal() }
    W.Gone.Signal()

# All enemies from one on, half a second apart.
March(B:base, From:int, W:wave)<suspends>:void =
    if (E := W.Enemies[From]):
        Sleep(0.5)
        set W.Begun += 1
        sync:
            Walk(B, E, W)
            March(B, From + 1, W)
