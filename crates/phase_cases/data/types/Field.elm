module Field exposing (..)

ok =
    .x { x = 1, y = 2 }
