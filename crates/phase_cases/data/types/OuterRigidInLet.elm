module OuterRigidInLet exposing (..)

outer : a -> a
outer x =
    let
        inner y =
            ( x, y )
    in
    Tuple.first (inner 1)
