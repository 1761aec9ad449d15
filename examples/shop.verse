# A purchase that happens whole or not at all. Look at: `Buy` may fail (`<decides>`), and what
# it changed before it failed is undone (`<transacts>`), in the stock too.
shop := class<unique>:
    var Stock:[string]int = map{"potion" => 2, "sword" => 1}

buyer := class<unique>:
    Name:string
    var Gold:int
    var Bag:[]string = array{}

    Buy(From:shop, What:string, Price:int)<transacts><decides>:void =
        From.Stock[What] > 0
        set From.Stock[What] -= 1
        set Bag += array{What}
        set Gold -= Price
        Gold >= 0

Report(P:buyer):void =
    Print("{P.Name}: {P.Gold} gold, {P.Bag.Length} things")

Main():void =
    S := shop{}
    Ann := buyer{Name := "Ann", Gold := 60}
    Bob := buyer{Name := "Bob", Gold := 20}
    if (Ann.Buy[S, "sword", 50]) { Print("Ann has a sword") }
    if (not Bob.Buy[S, "sword", 5]) { Print("no sword is left") }
    if (not Bob.Buy[S, "potion", 25]) { Print("Bob is too poor") }
    Report(Ann)
    Report(Bob)
    for (Thing -> Number : S.Stock):
        Print("{Thing}: {Number}")
