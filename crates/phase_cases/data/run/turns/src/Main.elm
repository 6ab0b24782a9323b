port module Main exposing (main)

-- A loop whose functions escape: each keeps the value of its own turn.


port out : List Int -> Cmd msg


port inp : (Int -> msg) -> Sub msg


kept : Int -> List (() -> Int) -> List (() -> Int)
kept n functions =
    if n == 0 then
        functions

    else
        let
            square =
                n * n
        in
        kept (n - 1) ((\_ -> n) :: (\_ -> square) :: functions)


main : Program () Int Int
main =
    Platform.worker
        { init = \_ -> ( 0, out (List.map (\f -> f ()) (kept 3 [])) )
        , update = \n model -> ( n, out (List.map (\f -> f ()) (kept n [ \_ -> model ])) )
        , subscriptions = \_ -> inp identity
        }
