object Main {
  def f(n: Int): Int = f(n);
  def main(args: Array[String]): Unit = println(f(1))
}
