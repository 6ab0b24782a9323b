module A exposing (..)

import Main
