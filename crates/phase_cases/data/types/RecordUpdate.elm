module RecordUpdate exposing (..)

f r =
    { r | x = r.x + 1 }
