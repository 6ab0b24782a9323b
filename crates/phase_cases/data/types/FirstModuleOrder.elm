module FirstModuleOrder exposing (..)

g : Int
g =
    "late"


f =
    String.length 1
