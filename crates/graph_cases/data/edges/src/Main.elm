module Main exposing (..)

import Absent
import List
import Twice
import Ambiguous
import Only
