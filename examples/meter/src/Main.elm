port module Main exposing (main)

-- A meter that is started with its first reading, and tells the reading after two hours of six kilowatts.


port reading : Int -> Cmd msg


main : Program Int { total : Int, hours : ( Int, Int ) } ()
main =
    Platform.worker
        { init = \first -> day first ( 4, 5 )
        , update = \_ meter -> ( meter, Cmd.none )
        , subscriptions = \_ -> Sub.none
        }


day : Int -> ( Int, Int ) -> ( { total : Int, hours : ( Int, Int ) }, Cmd () )
day first hours =
    ( { hours = hours, total = first }, reading (twice (\kilowatts -> kilowatts + 6) first) )


twice : (Int -> Int) -> Int -> Int
twice step start =
    step (step start)
