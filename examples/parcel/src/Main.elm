port module Main exposing (main)

-- The price of a parcel of three kilograms, in cents.


port price : Int -> Cmd msg


parcel : Int
parcel =
    thrice kilogram base


base : Int
base =
    450


kilogram : Int -> Int
kilogram =
    add 120


add : Int -> Int -> Int
add more cents =
    cents + more


thrice : (Int -> Int) -> Int -> Int
thrice step start =
    step (step (step start))


main : Program () () ()
main =
    Platform.worker
        { init = \_ -> ( (), price parcel )
        , update = \_ m -> ( m, Cmd.none )
        , subscriptions = \_ -> Sub.none
        }
