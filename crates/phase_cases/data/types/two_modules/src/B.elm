module B exposing (b)

b : Int
b =
    "x"
