module Main exposing (..)


count n total =
    if n == 0 then
        total

    else
        count (n - 1) (total + n)


kept n fs =
    if n == 0 then
        fs

    else
        kept (n - 1) ((\_ -> n) :: fs)


last xs =
    case xs of
        [] ->
            0

        [ x ] ->
            x

        _ :: rest ->
            last rest


length xs =
    case xs of
        [] ->
            0

        _ :: rest ->
            1 + length rest
