# What stands on the field of the wave defence: the base, its towers, an enemy, a wave of enemies.

tower := class<unique>:
    Name:string
    Hurts:int
    Wait:int

base := class<unique>:
    Lost:event() = event(){}
    var Health:int = 10
    var Gold:int = 100
    var Towers:[]tower = array{}

    Stands()<transacts><decides>:void =
        Health > 0

    # Fails where the gold is not enough, and then nothing was taken and no tower stands.
    Buy(T:tower, Price:int)<transacts><decides>:void =
        set Towers += array{T}
        set Gold -= Price
        Gold >= 0

    Hurt(By:int)<transacts>:void =
        set Health -= By

enemy := class<unique>:
    Name:string
    Halves:int
    Strength:int
    Worth:int
    var Health:int
    var Distance:int = 6
    var Paid:logic = false

    Stands()<transacts><decides>:void =
        Health > 0

    Hurt(By:int)<transacts>:void =
        set Health -= By

wave := class<unique>:
    Enemies:[]enemy
    Gone:event() = event(){}
    var Begun:int = 0

    # Of those that march, the one that is nearest to the base; of several the first.
    Nearest()<transacts><decides>:enemy =
        var Least:int = 1000
        var Found:?enemy = false
        for (I -> E : Enemies, I < Begun, E.Stands[], E.Distance < Least):
            set Least = E.Distance
            set Found = option{E}
        Found?

    IsOver()<transacts><decides>:void =
        Left := for (E : Enemies, E.Stands[]) { E }
        Left.Length = 0
