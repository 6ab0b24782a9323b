module Main exposing (main)


main =
    \x ->
        let
            y =
                let
                    x =
                        1
                in
                x
        in
        y
