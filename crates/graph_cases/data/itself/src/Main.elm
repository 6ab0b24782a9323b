module Main exposing (..)

import List
import    Main as M
