module Main exposing (..)


type Shape
    = Circle Int
    | Square Int Int


area shape =
    case shape of
        Circle _ ->
            \(Square a b) (Just c) -> a + b + c

        Circle 0 ->
            \_ _ -> 0


inner pair =
    let
        f ( [], y ) =
            case y of
                ( "a", 'b' ) ->
                    1

                ( "a", _ ) ->
                    2

        ( True, z ) =
            pair
    in
    ( f, z ) |> (\( _, Just _ ) -> ()) |> (\() -> ())


all ({ x } as whole) (( _, () ) as pair) _ =
    if whole == { x = pair } then
        [ \[ a, b ] -> a, \(a :: (Circle _ :: _)) -> a ]

    else
        []
