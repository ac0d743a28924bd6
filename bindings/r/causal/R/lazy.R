# Data frames that count their own records: those of dbplyr (tables of a database), and of sparklyr, by the verbs of dplyr. Only the
# counts are fetched, as of a table over a connection.

is_lazy <- function(data) inherits(data, "tbl_lazy")

# A verb of dplyr, with calls and names as they are.
verb <- function(name, data, ...) do.call(getExportedValue("dplyr", name), c(list(data), ...))

fetch_lazy_counts <- function(data, used, count) {
  number <- count_name(list(names = used))
  if (!is.null(count)) check_lazy_counts(data, as.name(count))
  counted <- if (is.null(count)) quote(n()) else call("sum", as.name(count), na.rm = TRUE)
  grouped <- verb("group_by", verb("ungroup", data), lapply(used, as.name))
  found <- verb("summarise", grouped, stats::setNames(list(counted), number), list(.groups = "drop"))
  ordered_counts(as.data.frame(verb("collect", found))[c(used, number)], used)
}

check_lazy_counts <- function(data, name) {
  wrong <- bquote(is.na(.(name)) | .(name) < 0 | .(name) != round(.(name), 0L))
  found <- verb("summarise", verb("filter", verb("ungroup", data), list(wrong)), list(wrong = quote(n())))
  refuse_wrong_counts(as.numeric(as.data.frame(verb("collect", found))$wrong))
}
