port module Main exposing (main)


port out : List Int -> Cmd msg


port inp : (Int -> msg) -> Sub msg


port also : (Int -> msg) -> Sub msg


type Msg
    = Got Int
    | Also Int


main : Program Int Int Msg
main =
    Platform.worker
        { init = \start -> ( start, out [ start ] )
        , update = update
        , subscriptions = \_ -> Sub.batch [ inp Got, also Also ]
        }


update msg model =
    case msg of
        Got n ->
            ( model + n, out [ model, n ] )

        Also n ->
            ( model, Cmd.batch [ out [ n ], Cmd.none, out (List.map (\k -> k * n) [ 1, 2, 3 ]) ] )
