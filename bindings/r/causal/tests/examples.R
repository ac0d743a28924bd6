# The example files run, and give what they show.
library(causal)
file <- system.file("examples", "from_a_database.R", package = "causal")
stopifnot(nzchar(file))
pdf(NULL)
ran <- new.env()
sys.source(file, ran)
invisible(dev.off())
stopifnot(abs(ran$answer$estimate[ran$answer$R == "success" & ran$answer$measure == "difference"] - (634983 / 762700 - 6231 / 8000)) < 1e-12, nrow(ran$tests) == 1)
