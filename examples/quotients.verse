# Division. Look at: `/` stands only in `Floor(..)` or `Ceil(..)`, which round down and up;
# `Mod[..]` is never negative; a divisor of 0 is a failure, and so a matter of `if`.
Main():void =
    if (A := Floor(-7/2), B := Ceil(-7/2), C := Mod[-7, 2]):
        Print("{A} {B} {C}")
    if (Floor(1/0) = 0):
        Print("never")
    else:
        Print("no quotient by 0")
