// Begins the worker that has the program, before the rest of the page is there. The worker stands in the page as a block of data, and in the page in one
// file the program does, too; else that stands beside the page.
{
  const dataOf = id => document.getElementById(id)?.textContent ?? '';
  const place = URL.createObjectURL(new Blob([dataOf('worker-data')], {type: 'text/javascript'}));
  const newWorker = name => new Worker(place, {name}), base64 = dataOf('module-data'), folder = new URL('.', document.baseURI).href;
  const first = newWorker(base64 ? '' : folder), early = [];
  first.onmessage = ({data}) => early.push(data); // what it tells before the page listens
  if (base64) first.postMessage({base64});
  globalThis.begun = {first, early, newWorker, isOneFile: base64 !== ''};
}
