# Counts that PostgreSQL makes: a server of its own is started for the test, where Debian's is there and CAUSAL_SERVERS is 1.
library(causal)
same <- function(a, b) stopifnot(identical(a, b))
skip <- function(why) {
  cat("skipped: postgres: ", why, "\n", sep = "")
  quit()
}
if (Sys.getenv("CAUSAL_SERVERS") != "1") skip("CAUSAL_SERVERS isn't 1")
driver <- Filter(function(package) nzchar(system.file(package = package)), c("RPostgres", "RPostgreSQL"))
if (!length(driver) || !nzchar(system.file(package = "DBI"))) skip("no package RPostgres or RPostgreSQL")
tools <- rev(sort(Sys.glob("/usr/lib/postgresql/*/bin")))
if (!length(tools)) skip("no server of PostgreSQL")
is_root <- system2("id", "-u", stdout = TRUE) == "0"
if (is_root && !nzchar(Sys.which("runuser"))) skip("no runuser")
here <- tempfile("pg", "/tmp")
dir.create(here)
# a server is no root's
as_user <- function(tool, ...) {
  words <- c(file.path(tools[1], tool), ...)
  if (is_root) words <- c("runuser", "-u", "postgres", "--", words)
  system2(words[1], words[-1], stdout = FALSE, stderr = FALSE)
}
if (is_root) system2("chown", c("postgres", here))
data <- file.path(here, "data")
if (as_user("initdb", "-D", data, "-A", "trust", "-U", "postgres", "-E", "UTF8", "--no-sync") != 0) skip("initdb fails")
options <- shQuote(paste0("-c listen_addresses='' -c fsync=off -k ", here))
if (as_user("pg_ctl", "-D", data, "-w", "-o", options, "-l", file.path(here, "log"), "start") != 0) skip("the server doesn't start")
stop_server <- function() as_user("pg_ctl", "-D", data, "-m", "immediate", "stop")
reg.finalizer(globalenv(), function(it) stop_server(), onexit = TRUE)
connection <- DBI::dbConnect(getExportedValue(driver[1], if (driver[1] == "RPostgres") "Postgres" else "PostgreSQL")(), host = here, user = "postgres", dbname = "postgres")
execute <- function(query) invisible(DBI::dbGetQuery(connection, query))
literal <- function(values) ifelse(is.na(values), "NULL", if (is.numeric(values)) values else paste0("'", gsub("'", "''", values), "'"))
insert <- function(table, data) execute(paste0("INSERT INTO ", table, " VALUES ", paste0("(", do.call(paste, c(lapply(unname(as.list(data)), literal), sep = ", ")), ")", collapse = ", ")))

# Names in upper case, a schema, and counts
stones <- causal_diagram("dag { T [exposure] R [outcome] S -> T S -> R T -> R }")
plain <- function(effects) sort(effects$fraction)
wanted <- plain(evaluate(stones, kidney_stones, count = "count", exact = TRUE))
execute("CREATE SCHEMA \"My Study\"")
execute("CREATE TABLE \"My Study\".\"Stones\" (\"S\" text, \"T\" text, \"R\" text, \"count\" integer)")
insert("\"My Study\".\"Stones\"", kidney_stones)
counted <- database_table(connection, c("My Study", "Stones"))
same(plain(evaluate(stones, counted, count = "count", exact = TRUE)), wanted)
same(contrast(stones, counted, treated = "A", control = "B", count = "count", resamples = 20, outcome = "success")$estimate,
     contrast(stones, kidney_stones, treated = "A", control = "B", count = "count", resamples = 0, outcome = "success")$estimate)

# NULLs, and text in the order of the language
execute("CREATE TABLE words (\"S\" text, \"T\" text, \"R\" text)")
rows <- kidney_stones[rep(seq_len(8), kidney_stones$count), 1:3]
rows$S <- ifelse(rows$S == "small", "\u00e9t\u00e9 d'or", "Zeit")
insert("words", rbind(rows, data.frame(S = NA, T = "A", R = "success")))
listed <- database_table(connection, "words")
stopifnot(inherits(tryCatch(evaluate(stones, listed), error = identity), "causal_missing_values"))
found <- evaluate(stones, listed, exact = TRUE, missing = "drop")
same(plain(found), wanted)
same(attr(found, "dropped"), 1)
same(plain(evaluate(stones, rbind(rows, data.frame(S = NA, T = "A", R = "success")), exact = TRUE, missing = "drop")), wanted)

# Many records, of which the database fetches counts alone
records <- as.numeric(Sys.getenv("CAUSAL_POSTGRES_RECORDS", "200000"))
execute(sprintf("CREATE TABLE many AS SELECT (i %% 2) AS \"S\", (i / 2 %% 2) AS \"T\", CASE WHEN i %% 7 < 3 THEN 1 ELSE 0 END AS \"R\" FROM generate_series(1, %.0f) AS i", records))
took <- system.time(found <- evaluate(stones, database_table(connection, "many")))[["elapsed"]]
same(nrow(found), 4L)
cat(format(records, big.mark = ","), "records of PostgreSQL in", round(took, 1), "s\n")
invisible(DBI::dbDisconnect(connection))
