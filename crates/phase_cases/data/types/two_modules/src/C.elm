module C exposing (c)

c : Int
c =
    "x"
