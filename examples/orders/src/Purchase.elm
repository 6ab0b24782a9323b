module Purchase exposing (Purchase, Outcome(..), price)

import Dict exposing (Dict)


type alias Purchase =
    { id : Int, lines : List { cents : Int, count : Int }, coupon : Maybe String }


type Outcome
    = Priced Int (Dict String Int)
    | Refused String


{-| What an order costs, and the coupons that are left. Each coupon takes a tenth off, so many times.
-}
price : Dict String Int -> Purchase -> Outcome
price coupons order =
    let
        sum =
            List.sum (List.map (\line -> line.cents * line.count) order.lines)
    in
    case order.coupon of
        Nothing ->
            Priced sum coupons

        Just coupon ->
            case Dict.get coupon coupons of
                Nothing ->
                    Refused ("no coupon " ++ coupon)

                Just 0 ->
                    Refused ("coupon " ++ coupon ++ " is used up")

                Just left ->
                    Priced (sum - sum // 10) (Dict.insert coupon (left - 1) coupons)
