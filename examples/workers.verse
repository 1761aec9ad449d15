# `spawn` starts a call outside of all scopes and gives its task. Look at: `Await` waits for the
# result, a second `Await` has it at once, and what nobody waits for runs to its end all the same.
Dig(Depth:int)<suspends>:int =
    for (I := 1..Depth) { Sleep(1.0) }
    Depth * 100

Sing()<suspends>:void =
    Sleep(5.0)
    Print("la la")

Main()<suspends>:void =
    Deep := spawn{Dig(3)}
    Flat := spawn{Dig(1)}
    spawn{Sing()}
    Print("both digging")
    A := Deep.Await()
    B := Flat.Await()
    Again := Deep.Await()
    Print("{A} {B} {Again}")
