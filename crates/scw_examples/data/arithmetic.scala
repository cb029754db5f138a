object Main {
  def main(args: Array[String]): Unit = {
    println(2147483647 + 1);
    println(9223372036854775807L + 1L);
    println(7 / 2);
    println((0 - 7) / 2);
    println((0 - 7) % 2);
    println(46341 * 46341);
    println(46341L * 46341L);
    println(10 - 3)
  }
}
