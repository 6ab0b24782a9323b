module Destructured exposing (..)

x =
    let
        ( f, g ) =
            ( \p -> p, \q -> q )
    in
    ( f 1, f "a", g )
