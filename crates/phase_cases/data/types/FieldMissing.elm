module FieldMissing exposing (..)

bad =
    .z { x = 1, y = 2 }
