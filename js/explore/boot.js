// Starts the workers while the browser still reads the rest of the page, of which their code comes first.
import { Workers } from "./workers.js";

const MOST = 3; // workers: more of them only wait for one another
const code = document.getElementById("worker-code").textContent;
const url = URL.createObjectURL(new Blob([code], { type: "text/javascript" }));
const count = Math.max(1, Math.min(MOST, (navigator.hardwareConcurrency ?? 2) - 1));
window.startedWorkers = new Workers(url, count);
