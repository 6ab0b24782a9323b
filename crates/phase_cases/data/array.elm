module Array exposing (Array, append, empty, filter, foldl, foldr, fromList, get, indexedMap, initialize, isEmpty, length, map, push, repeat, set, slice, toIndexedList, toList)


type Array a
    = Array a


empty : Array a
empty =
    Debug.todo "Array"


isEmpty : Array a -> Bool
isEmpty _ =
    Debug.todo "Array"


length : Array a -> Int
length _ =
    Debug.todo "Array"


initialize : Int -> (Int -> a) -> Array a
initialize _ _ =
    Debug.todo "Array"


repeat : Int -> a -> Array a
repeat _ _ =
    Debug.todo "Array"


fromList : List a -> Array a
fromList _ =
    Debug.todo "Array"


get : Int -> Array a -> Maybe a
get _ _ =
    Debug.todo "Array"


set : Int -> a -> Array a -> Array a
set _ _ _ =
    Debug.todo "Array"


push : a -> Array a -> Array a
push _ _ =
    Debug.todo "Array"


toList : Array a -> List a
toList _ =
    Debug.todo "Array"


toIndexedList : Array a -> List ( Int, a )
toIndexedList _ =
    Debug.todo "Array"


foldr : (a -> b -> b) -> b -> Array a -> b
foldr _ _ _ =
    Debug.todo "Array"


foldl : (a -> b -> b) -> b -> Array a -> b
foldl _ _ _ =
    Debug.todo "Array"


filter : (a -> Bool) -> Array a -> Array a
filter _ _ =
    Debug.todo "Array"


map : (a -> b) -> Array a -> Array b
map _ _ =
    Debug.todo "Array"


indexedMap : (Int -> a -> b) -> Array a -> Array b
indexedMap _ _ =
    Debug.todo "Array"


append : Array a -> Array a -> Array a
append _ _ =
    Debug.todo "Array"


slice : Int -> Int -> Array a -> Array a
slice _ _ _ =
    Debug.todo "Array"
