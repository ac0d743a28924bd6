// The names under which the program finds its inputs, and which the shown command lines carry.
export const DIAGRAM = "diagram.dag";
export const SECOND = "second.dag";
export const CERTIFICATE = "certificate.json";

/** With it the program answers in JSON. */
export const AS_JSON = "--json";
