module Main exposing (main)


main =
    \n ->
        if n == 0 then
            n

        else
            main (n - 1)
