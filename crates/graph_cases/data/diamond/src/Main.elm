module Main exposing (..)

import D
