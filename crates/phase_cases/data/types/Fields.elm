module Fields exposing (..)

f r =
    r.x + r.y
