# Classes. Look at: `Roar` is chosen by the class of the object, not by the type of the variable;
# a field without a default must be given; `Self` is the object; instances are references.
monster := class:
    Name:string
    var Health:int = 10
    Roar():string = "..."
    Hit(By:int):void =
        set Health -= By
        Print("{Name} says {Self.Roar()}, {Health} left")

dragon := class(monster):
    Roar<override>():string = "ROAR"

Main():void =
    Old := dragon{Name := "Smaug", Health := 50}
    Pack:[]monster = array{monster{Name := "Rat"}, Old}
    for (M : Pack):
        M.Hit(4)
    Old.Hit(1)
