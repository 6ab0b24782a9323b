module B exposing (..)

import A
import Dict exposing (Dict)
import D.E
import C
