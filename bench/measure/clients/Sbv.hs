-- Goals for SBV, each in a session of its own with the solver: a line for each says what came of it. SBV itself computes the
-- goal at the values that it was given (validateModel), but where there are quantifiers.
--
-- usage: sbv z3|cvc4 [NAME..]    with SBV_Z3 or SBV_CVC4 as the program to run, which finds the goal's name in QV_GOAL
{-# LANGUAGE DataKinds, FlexibleContexts, ScopedTypeVariables #-}
module Main (main) where

import Control.Exception (SomeException, try)
import Control.Monad (forM, forM_, void, when)
import qualified Data.Map as M
import Data.List (sort)
import Data.SBV
import Data.SBV.Control
import System.Environment (getArgs, setEnv)
import System.IO (hFlush, stdout)

type Trial = SMTConfig -> IO String

-- What came of a theorem, and of a search. The values are said by `full` alone: there is one model in these.
proves, finds, findsOnly, refutesOnly :: Provable a => a -> Trial
proves goal config = said False "proved" "refuted" . unThm <$> proveWith config goal
refutesOnly goal config = said True "proved" "refuted" . unThm <$> proveWith config goal
finds goal config = said False "nothing" "found" . unSat <$> satWith config goal
findsOnly goal config = said True "nothing" "found" . unSat <$> satWith config goal

unThm :: ThmResult -> SMTResult
unThm (ThmResult r) = r

unSat :: SatResult -> SMTResult
unSat (SatResult r) = r

said :: Bool -> String -> String -> SMTResult -> String
said full none some r = case r of
  Unsatisfiable{} -> none
  Satisfiable{} -> some ++ (if full then concat [" " ++ k ++ "=" ++ show v | (k, v) <- M.toList (getModelDictionary (SatResult r))] else "")
  Unknown _ why -> "unknown: " ++ show why
  ProofError _ why _ -> "error: " ++ unwords (lines (unlines why))
  _ -> "another answer"

-- All solutions, in an order of their own.
allOf :: Provable a => a -> Trial
allOf goal config = do
  found <- allSatWith config goal
  let shown = [unwords [k ++ "=" ++ show v | (k, v) <- M.toList d] | d <- getModelDictionaries found]
  return (show (length shown) ++ " solutions: " ++ unwords (map (map space) (sort shown)))
  where space c = if c == ' ' then '_' else c

-- A session with the solver.
asks :: Symbolic String -> Trial
asks session config = runSMTWith config session

power :: SWord 32 -> SBool
power x = let b = x .&. negate x in b .&. (b - 1) .== 0

goals :: [(String, Trial)]
goals =
  [ ("add-commutes", proves $ \(x :: SWord32) y -> x + y .== y + x)
  , ("mul-distributes", proves $ \(x :: SWord 4) y z -> x * (y + z) .== x * y + x * z)
  , ("de-morgan", proves $ \(x :: SWord64) y -> complement (x .&. y) .== complement x .|. complement y)
  , ("lowest-bit", proves power)
  , ("average", proves $ \(x :: SWord8) y ->
      let m = (x .&. y) + ((x `xor` y) `shiftR` 1) in (x .<= y) .=> (x .<= m .&& m .<= y))
  , ("swap", proves $ \(x :: SWord16) y -> let a = x `xor` y; b = a `xor` y; c = a `xor` b in b .== x .&& c .== y)
  , ("rotate", proves $ \(x :: SWord32) -> (x `rotateL` 7) `rotateR` 7 .== x)
  , ("bits-of-16", proves $ \(x :: SWord16) -> sPopCount x .<= 16)
  , ("absolute", refutesOnly $ do x <- sInt8 "x"; return (abs x .>= 0))
  , ("signed-order", refutesOnly $ do x <- sInt8 "x"; y <- sInt8 "y"; constrain (y .== 127); return (x .<= y - 1))
  , ("divide", proves $ \(x :: SWord 4) y -> y ./= 0 .=> (x `sDiv` y) * y + x `sMod` y .== x)
  , ("divide-signed", proves $ \(x :: SInt 4) y -> y ./= 0 .=> (x `sQuot` y) * y + x `sRem` y .== x)
  , ("factors", findsOnly $ do
      x <- free "x"; y <- free "y"
      return ((sFromIntegral (x :: SWord8) * sFromIntegral (y :: SWord8) :: SWord16) .== 143 .&& 1 .< x .&& x .< y))
  , ("no-order", finds $ \(x :: SInt16) -> x .< x)
  , ("sorted", finds $ do
      xs <- mapM free ["a", "b", "c", "d"]
      return (sAnd (zipWith (.<) xs (tail xs)) .&& sum xs .== (100 :: SWord8)))
  , ("join", findsOnly $ do
      h <- free "h"; l <- free "l"
      return (((h :: SWord 8) # (l :: SWord 8)) .== (0xbeef :: SWord 16)))
  , ("choose", finds $ do
      x <- free "x"
      let y = ite (x .> 100) (x - 100) (ite (x .> 50) (x * 2) (x + 1)) :: SWord8
      return (y .== 42))
  , ("signed-shift", findsOnly $ do x <- free "x"; return (((x :: SInt8) `sSignedShiftArithRight` (2 :: SWord8)) .== -3 .&& sTestBit x 0 .&& sTestBit x 1))
  , ("booleans", finds $ do
      holes <- forM [1 .. 4 :: Int] $ \p -> forM [1 .. 3 :: Int] $ \h -> free ("p" ++ show p ++ show h)
      let placed = sAnd (map sOr holes)
          alone = sAnd [sNot (a !! h .&& b !! h) | h <- [0 .. 2], (i, a) <- zip [0 :: Int ..] holes, (j, b) <- zip [0 ..] holes, i < j]
      return (placed .&& alone))
  , ("wide", findsOnly $ do
      x <- free "x"; y <- free "y"
      constrain ((x :: SWord 100) + y .== 2 ^ (99 :: Int) + 1)
      return (y .== 1))
  , ("all-nibbles", allOf $ do x <- free "x"; return ((x :: SWord8) .&. 0xf3 .== 0x31))
  , ("all-sums", allOf $ do x <- free "x"; y <- free "y"; return ((x :: SWord8) + y .== 3 .&& x .< 4 .&& y .< 4))
  , ("all-roots", allOf $ do x <- free "x"; return ((x :: SWord 10) * x .== 1))
  , ("all-of-none", allOf $ do x <- free "x"; return ((x :: SInt8) .> 5 .&& x .< 6))
  , ("all-flags", allOf $ do p <- sBool "p"; q <- sBool "q"; r <- sBool "r"; return ((p .=> q) .&& (q .<+> r)))
  , ("every-has-negative", proves $ do
      x <- forall "x"; y <- exists "y"
      return ((x :: SWord8) + y .== 0))
  , ("no-greatest", proves $ do
      x <- forall "x"; y <- exists "y"
      return ((x :: SWord8) .< y .|| x .== maxBound))
  , ("greatest", finds $ do
      x <- exists "x"; y <- forall "y"
      return ((x :: SWord16) .>= y))
  , ("least-mask", finds $ do
      m <- exists "m"; x <- forall "x"
      return ((m :: SWord8) .&. x .== x `sMod` 16))
  , ("no-inverse", finds $ do
      x <- exists "x"; y <- forall "y"
      return ((x :: SWord8) * y ./= 1 .&& sTestBit x 0))
  , ("three-levels", finds $ do
      x <- exists "x"; y <- forall "y"; z <- exists "z"
      return (((x :: SWord 4) `xor` y) + z .== 5))
  , ("levels", asks $ do
      x <- sWord8 "x"
      constrain (x .> 10)
      query $ do
        a <- checkSat
        push 1
        constrain (x .< 5)
        b <- checkSat
        pop 1
        push 2
        constrain (x .< 12)
        c <- checkSat
        v <- getValue x
        pop 1
        depth <- getAssertionStackDepth
        return (unwords [show a, show b, show c, show v, show depth]))
  , ("assumed", asks $ do
      x <- sWord8 "x"
      p <- sBool "p"
      q <- sBool "q"
      constrain (p .=> x .< 5)
      constrain (q .=> x .> 7)
      query $ do
        a <- checkSatAssuming [p]
        b <- checkSatAssuming [p, q]
        c <- checkSatAssuming [q, sNot p]
        d <- checkSat
        return (unwords (map show [a, b, c, d])))
  , ("grows", asks $ do
      x <- sWord8 "x"
      constrain (x .> 250)
      query $ do
        let next n y
              | n == (0 :: Int) = return []
              | otherwise = do
                  z <- freshVar ("z" ++ show n)
                  constrain (z .== y + 1)
                  constrain (z ./= 0)
                  push 1
                  c <- checkSat
                  rest <- next (n - 1) z
                  return (show c : rest)
        unwords <$> next 6 x)
  , ("declared-behind", asks $ do
      x <- sWord8 "x"
      constrain (x .== 42)
      query $ do
        a <- checkSat
        y <- freshVar "y"
        constrain (y .== x + 1)
        b <- checkSat
        v <- getValue (y :: SWord8)
        w <- getValue x
        push 1
        z <- freshVar "z"
        constrain (z .== y + x)
        pop 1
        constrain (z .== (7 :: SWord8))
        c <- checkSat
        u <- getValue z
        return (unwords [show a, show b, show v, show w, show c, show u]))
  , ("models", asks $ do
      x <- sWord16 "x"
      y <- sInt8 "y"
      constrain (x .== 0xbeef)
      constrain (y .== -3)
      query $ do
        c <- checkSat
        m <- getModel
        t <- getValue (sFromIntegral y + x :: SWord16)
        return (unwords [show c, show (getModelValue "x" (SatResult (Satisfiable z3 m)) :: Maybe Word16), show t]))
  , ("starts-again", asks $ do
      x <- sWord8 "x"
      constrain (x .< 5)
      query $ do
        a <- checkSat
        resetAssertions
        constrain (x .== 77)
        b <- checkSat
        v <- getValue x
        return (unwords [show a, show b, show v]))
  , ("tells", asks $ do
      x <- sWord8 "x"
      constrain (x .== 1)
      query $ do
        n <- getInfo Name
        void checkSat
        e <- getInfo ErrorBehavior
        d <- getInfo AssertionStackLevels
        echo "here"
        return (unwords [length (show n) `seq` "a name", show d, takeWhile (/= ' ') (show e)]))
  , ("three-checks", asks $ do
      x <- sWord8 "x"
      y <- sWord8 "y"
      constrain (x * y .== 221 .&& x .< y)
      constrain (x ./= 1)
      query $ do
        constrain (sFromIntegral x * sFromIntegral y .== (221 :: SWord16))
        a <- checkSat
        v <- getValue x
        w <- getValue y
        constrain (x ./= literal v)
        b <- checkSat
        c <- checkSatAssuming [x .== literal v]
        return (unwords [show a, show v, show w, show b, show c]))
  , ("core", asks $ do
      x <- sWord8 "x"
      setOption (ProduceUnsatCores True)
      namedConstraint "small" (x .< 5)
      namedConstraint "odd" (sTestBit x 0)
      namedConstraint "large" (x .> 7)
      query $ do
        a <- checkSat
        c <- getUnsatCore
        return (unwords (show a : sort c)))
  , ("table", finds $ \(x :: SWord 2) -> select [3, 1, 4, 1] (0 :: SWord8) x .== 4)
  , ("numbers", finds $ \(x :: SInteger) -> x * 2 .== 10)
  ]

main :: IO ()
main = do
  name : wanted <- getArgs
  let base = if name == "cvc4" then cvc4 else z3
      config = base { validateModel = True }
  forM_ goals $ \(goal, run) -> when (null wanted || goal `elem` wanted) $ do
    setEnv "QV_GOAL" goal
    answer <- try (run config >>= \s -> length s `seq` return s)
    putStrLn (goal ++ ": " ++ either (\e -> "failed: " ++ brief (show (e :: SomeException))) id answer)
    hFlush stdout
  where brief = unwords . words . take 900
