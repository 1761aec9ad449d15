<# Braces, comments and spacing are free. #>
Main() : void = {
    Print("in braces"); Print("and on one line") # the last part
}
