module Main exposing (..)


sum a b =
    a + b - a * b


both a b =
    a && b || a


opposite a =
    -a


parts a b =
    a // b


joined a b =
    a ++ b


power a b =
    a ^ b


after f g =
    f << g


before f g =
    f >> g


piped x f =
    x |> f


sent f x =
    f <| x


plus =
    (+)
