# Times questions about data in the R package: `Rscript bench/r_data.R`, with the package installed.
#
# It prints the processor's time, the least of some rounds, of a contrast with 1,000 resamples of a small table, of bounds with as many, and of the
# tests of all implications of a diagram of 12 variables over 50,000 records.
suppressPackageStartupMessages(library(causal))

confounded <- causal_diagram("dag { T [exposure] R [outcome] S -> T -> R <- S }")
trial <- causal_diagram("dag { T [exposure] R [outcome] S -> T -> R T <-> R }")

timed <- function(name, call, rounds = 5) {
  call()
  times <- vapply(seq_len(rounds), function(round) {
    start <- proc.time()
    call()
    sum((proc.time() - start)[c("user.self", "sys.self")])
  }, 0)
  cat(sprintf("%s: %.3f s of processor\n", name, min(times)))
}

set.seed(1)
data <- data.frame(S = sample(0:1, 500, TRUE), T = sample(0:1, 500, TRUE), R = sample(0:1, 500, TRUE))
timed("contrast, 500 records, 1000 resamples", function() contrast(confounded, data, treated = 1, control = 0, outcome = 1))
timed("bounds, 500 records, 1000 resamples", function() bounds_effect(trial, data, instrument = "S", resamples = 1000))

edges <- "A -> C A -> D B -> D B -> E C -> F D -> F D -> G E -> G F -> X G -> X F -> H X -> H X -> Y H -> I G -> Y F -> Y A -> J B -> J"
large <- causal_diagram(paste("dag { X [exposure] Y [outcome]", edges, "}"))
records <- simulate(large, n = 50000, seed = 2, levels = 3)
timed("48 tests, 50,000 records of 12 variables", function() test_implications(large, records), 2)
