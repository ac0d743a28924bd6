// Computes layouts, away from the page: a message {id, outline} is answered by {id, places}.
import { arrange } from "./layout.js";

onmessage = ({ data: { id, outline } }) => postMessage({ id, places: arrange(outline) });
