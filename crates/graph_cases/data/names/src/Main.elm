import Zebra
import Data.Tree
import Ant
