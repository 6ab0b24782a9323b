module C exposing (..)

import List
