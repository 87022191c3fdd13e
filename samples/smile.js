import delta from "smile"; export { delta };
