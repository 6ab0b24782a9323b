port module Main exposing (main)

-- Orders come in at the port `orders`, and their totals go out at `totals`. A coupon that is used up is refused.

import Dict exposing (Dict)
import Purchase exposing (Purchase, Outcome(..))


port orders : (Purchase -> msg) -> Sub msg


port totals : { id : Int, cents : Int } -> Cmd msg


port refused : { id : Int, reason : String } -> Cmd msg


type alias Model =
    { coupons : Dict String Int }


main : Program (List ( String, Int )) Model Purchase
main =
    Platform.worker
        { init = \coupons -> ( { coupons = Dict.fromList coupons }, Cmd.none )
        , update = update
        , subscriptions = \_ -> orders identity
        }


update : Purchase -> Model -> ( Model, Cmd Purchase )
update order model =
    case Purchase.price model.coupons order of
        Priced cents left ->
            ( { model | coupons = left }, totals { id = order.id, cents = cents } )

        Refused reason ->
            ( model, refused { id = order.id, reason = reason } )
