        , update = \_ m -> ( m, Cmd.none )
        , subscriptions = \_ -> Sub.none
        }
