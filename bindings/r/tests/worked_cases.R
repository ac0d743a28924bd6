# worked_cases.R FLAT: runs the cases of a file that bindings/c/flatten.py wrote, and prints what each gave.
library(causal)
bytes <- local({
  file <- commandArgs(trailingOnly = TRUE)[1]
  readBin(file, "raw", n = file.size(file))
})
at <- 1
colon <- charToRaw(":")

# The next piece: its length, a colon, its bytes.
piece <- function() {
  front <- bytes[at:min(at + 20, length(bytes))]
  digits <- which(front == colon)[1] - 1
  size <- as.numeric(rawToChar(front[seq_len(digits)]))
  start <- at + digits + 1
  at <<- start + size
  bytes[seq_len(size) + start - 1]
}
text <- function() {
  text <- rawToChar(piece())
  Encoding(text) <- "UTF-8"
  text
}
number <- function() as.integer(text())

for (k in seq_len(number())) {
  name <- text()
  words <- vapply(seq_len(number()), function(i) text(), "")
  inputs <- list()
  for (i in seq_len(number())) {
    input <- text()
    inputs[[input]] <- piece()
  }
  answer <- causal_run(words, inputs)
  mark <- if (nzchar(answer$err)) "-- err\n" else ""
  cat("== ", name, ": ", answer$status, "\n", answer$out, mark, answer$err, sep = "")
}
