# Maps and arrays. Look at: a map keeps its keys in the order in which they came; reading a key
# that is absent fails; writing one adds it; arrays are values, so `Copy` keeps what it was.
Main():void =
    var Bag:[string]int = map{"rope" => 1, "torch" => 4}
    if (set Bag["rope"] += 2) {}
    if (set Bag["map"] = 1) {}
    if (N := Bag["boat"]) { Print("{N} boats") } else { Print("no boat") }
    for (What -> Count : Bag):
        Print("{What} x{Count}")
    var Order:[]int = array{3, 1}
    Copy := Order
    set Order += array{2}
    if (set Order[0] = 9) {}
    Print("{Order.Length} and {Copy.Length}")
