module D exposing (..)

import C
import B as Bee exposing (b)
import C
