# A failed purchase leaves nothing behind. Look at: the third purchase fails, so neither its price nor its line is
# there; then the shopper leaves, which ends the race and cancels the arm that waits for closing time.
player := class<unique> { Name:string, var Gold:int = 70 }

Buy(P:player, Price:int)<transacts><decides>:void =
    set P.Gold -= Price
    Print("{P.Name} pays {Price}, {P.Gold} left")
    P.Gold >= 0

Shop(P:player)<suspends>:void =
    defer { Print("{P.Name} leaves") }
    loop:
        Sleep(1.0)
        if (Buy[P, 30]) {} else { break }

Main()<suspends>:void =
    Ann := player{Name := "Ann"}
    race:
        Shop(Ann)
        block { Sleep(10.0); Print("the stall closes") }
    Print("{Ann.Name} has {Ann.Gold} gold")
