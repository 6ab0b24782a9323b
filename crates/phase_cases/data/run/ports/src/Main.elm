port module Main exposing (main)


port out : String -> Cmd msg


port int : (Int -> msg) -> Sub msg


port bool : (Bool -> msg) -> Sub msg


port string : (String -> msg) -> Sub msg


port unit : (() -> msg) -> Sub msg


port maybe : (Maybe Int -> msg) -> Sub msg


port list : (List String -> msg) -> Sub msg


port pair : (( Int, String ) -> msg) -> Sub msg


port triple : (( Bool, (), List Int ) -> msg) -> Sub msg


port record : (Person -> msg) -> Sub msg


port deep : (List (Maybe { at : ( Int, Maybe Person ), tags : List (List Bool) }) -> msg) -> Sub msg


type alias Person =
    { name : String, age : Maybe Int, friends : List String }


type Msg
    = Say String


main : Program () Int Msg
main =
    Platform.worker
        { init = \_ -> ( 0, out "ready" )
        , update = \(Say s) n -> ( n + 1, out (String.fromInt n ++ " " ++ s) )
        , subscriptions =
            \_ ->
                Sub.batch
                    [ int (Say << String.fromInt)
                    , bool (Say << showBool)
                    , string Say
                    , unit (\() -> Say "unit")
                    , maybe (Say << showMaybe String.fromInt)
                    , list (Say << showList identity)
                    , pair (\( n, s ) -> Say (s ++ String.fromInt n))
                    , triple (\( b, (), ns ) -> Say (showBool b ++ showList String.fromInt ns))
                    , record (Say << showPerson)
                    , deep (Say << showList (showMaybe showDeep))
                    ]
        }


showBool : Bool -> String
showBool b =
    if b then
        "yes"

    else
        "no"


showMaybe : (a -> String) -> Maybe a -> String
showMaybe f m =
    Maybe.withDefault "-" (Maybe.map f m)


showList : (a -> String) -> List a -> String
showList f xs =
    "[" ++ String.join "," (List.map f xs) ++ "]"


showPerson : Person -> String
showPerson p =
    p.name ++ ":" ++ showMaybe String.fromInt p.age ++ showList identity p.friends


showDeep : { at : ( Int, Maybe Person ), tags : List (List Bool) } -> String
showDeep { at, tags } =
    String.fromInt (Tuple.first at)
        ++ showMaybe showPerson (Tuple.second at)
        ++ showList (showList showBool) tags
