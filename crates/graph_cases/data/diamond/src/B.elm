module B exposing (b)

b = 1
