// How a child ended, in words.
export function endingText({ status, error }) {
  if (status === null) return `The program gave no answer: ${error}.`;
  const how = status < 0 ? `by signal ${-status}` : `with status ${status}`;
  return `The program's child ended ${how}${error ? `: ${error}` : "."}`;
}
