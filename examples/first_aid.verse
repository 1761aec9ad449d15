# `rush` goes on with the first arm that is done and lets the others finish. Look at: the medic
# is used at once, and the slower one still arrives, since `Main` has not ended.
Medic(Name:string, After:int)<suspends>:string =
    for (I := 1..After) { Sleep(1.0) }
    Print("{Name} is there")
    Name

Main()<suspends>:void =
    First := rush:
        Medic("Mia", 4)
        Medic("Leo", 2)
    Print("{First} helps")
    Sleep(3.0)
    Print("end")
