object Main {
  def part(n: Int, of: Int): Int = of / n;
  def main(args: Array[String]): Unit = {
    println(part(4, 12));
    println(part(0, 12));
    println("not printed")
  }
}
