module RecordPattern exposing (..)

f { x, y } =
    x ++ y
